"""A page that shows an index: `python -m bkd.view FOLDER`."""
from .answers import Viewer
from .server import Server, serve

__all__ = ["Server", "Viewer", "serve"]
