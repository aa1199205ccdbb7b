"""The second checker for what compares with it. Its file is loaded by its path: nothing imports it by its name, since
it has to stand alone, and its command line tells the verdict only, where rows and spans are compared."""
import importlib.util
import sys
from pathlib import Path

PATH = Path(__file__).resolve().parents[2] / "second/recheck.py"
SPEC = importlib.util.spec_from_file_location("second_checker", PATH)
recheck = sys.modules[SPEC.name] = importlib.util.module_from_spec(SPEC)
SPEC.loader.exec_module(recheck)
