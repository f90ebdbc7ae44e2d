"""What tests of maps share: the recursion of the definition (tools/map-model), and keys that are near each other."""
import hashlib
import importlib.machinery
import importlib.util
import os
import pathlib
import sys

# rounds of changes, of hostile proofs and of kills; PAXIDORE_ROUNDS=100000 takes the long way
ROUNDS = int(os.environ.get("PAXIDORE_ROUNDS", "60"))
KILLS = int(os.environ.get("PAXIDORE_KILLS", str(max(20, ROUNDS // 15))))


def load_model():
    path = str(pathlib.Path(__file__).resolve().parents[3] / "tools" / "map-model")
    sys.dont_write_bytecode = True
    loader = importlib.machinery.SourceFileLoader("map_model", path)
    spec = importlib.util.spec_from_loader("map_model", loader)
    module = importlib.util.module_from_spec(spec)
    loader.exec_module(module)
    return module


MODEL = load_model()

def sha(data):
    return hashlib.sha256(data).digest()


def near(number):
    """A key of which two in three are near another one, so that ways are long."""
    return MODEL.key_of(number)
