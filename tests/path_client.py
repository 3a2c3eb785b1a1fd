"""The Python client of clients/python, by its own name for the scripts of this folder."""
import importlib.util
import sys
from pathlib import Path

FOLDER = Path(__file__).resolve().parent.parent / "clients/python/path_client"
spec = importlib.util.spec_from_file_location("path_client", FOLDER / "__init__.py", submodule_search_locations=[str(FOLDER)])
sys.modules["path_client"] = importlib.util.module_from_spec(spec)
spec.loader.exec_module(sys.modules["path_client"])
