"""The top of the tree, and the program that the script `thriftd` there runs. Behind this import the module `texts` of
tools/ is found."""
import os
import subprocess
import sys

TOP = os.path.dirname(os.path.dirname(os.path.dirname(os.path.abspath(__file__))))
sys.path.append(os.path.join(TOP, "tools"))


def built_program():
    found = subprocess.run([os.path.join(TOP, "thriftd")], env={**os.environ, "THRIFTD_PATH_ONLY": "1"}, stdout=subprocess.PIPE, text=True, check=True)
    return found.stdout.rstrip("\n")
