"""What is tried: the stored vectors, made with the model's answers."""
