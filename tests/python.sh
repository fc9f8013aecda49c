#!/bin/sh
# Prints which Python runs the tests where PYTHON doesn't say: the system's, for which its packages are, else the first on the path.
if [ -x /usr/bin/python3 ]; then echo /usr/bin/python3; else echo python3; fi
