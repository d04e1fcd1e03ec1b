"""The tests of the tools, and of the developers' programs, whose modules they find too."""
import os
import sys

sys.path.append(os.path.join(os.path.dirname(os.path.dirname(os.path.dirname(os.path.realpath(__file__)))), 'dev'))
