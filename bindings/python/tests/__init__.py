"""The tests, run by `python3 -m unittest` from the folder above. With TILLSPARROW_HIDE_NUMPY set they run as if numpy were not
installed."""
import os
import sys

if os.environ.get("TILLSPARROW_HIDE_NUMPY"):
    sys.modules["numpy"] = None  # type: ignore[assignment]
