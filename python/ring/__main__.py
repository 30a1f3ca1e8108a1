"""The command `./ring`."""
import os
import sys

sys.dont_write_bytecode = True
sys.path[0] = os.path.dirname(os.path.dirname(os.path.abspath(__file__)))
from ring import command, door

door.ended("ring", command.main)
