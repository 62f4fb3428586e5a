"""Document 01's example tank, which holds water; its report is for the others to work out (see
printing.py).
"""

from model.fields import Anchors, Course, Site, Tank

TANK = Tank(D=14_400, H=28_800, W=11_000, plate=250, allowance=0, Fy=36_000)
SITE = Site(V=105, Kz=109, I=115, Av=27, Ms=30_000)
ANCHORS = Anchors(N=6, B=14_800, d=8)
COURSES = [Course(width=9_600, t=250, c=0, s=15_000, E=85)] * 3
