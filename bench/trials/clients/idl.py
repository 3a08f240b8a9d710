"""Writes the tutorial's IDL, as the program holds it, into a folder: idl.py FOLDER"""
import os
import sys

sys.path.insert(0, os.path.join(os.path.dirname(os.path.abspath(__file__)), ".."))
from tutorial import SHARED, TUTORIAL

for name, text in (("tutorial", TUTORIAL), ("shared", SHARED)):
    with open(os.path.join(sys.argv[1], name + ".thrift"), "w") as out:
        out.write(text)
