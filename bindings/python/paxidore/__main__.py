"""``python -m paxidore`` says which library is called, which of its builds, and what this module has."""
import paxidore
from paxidore import _library

print("paxidore %s, library %s (%s) for %s" % (paxidore.__version__, paxidore.version(), _library._found, paxidore.cpu()))
print("It has: %s" % ", ".join(paxidore.__all__))
