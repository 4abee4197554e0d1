// The packages, from the bottom up: the file that the program is given.
import Flow::*;
import Valve::*;
