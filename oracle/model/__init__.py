"""What is right: the rules of documents 01 and 02, one file a subject. It imports no vectors."""
