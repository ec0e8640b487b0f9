"""The package tools/checks under its own name, for the scripts of this folder."""
import os

__path__ = [os.path.join(os.path.dirname(os.path.dirname(os.path.abspath(__file__))), 'tools', 'checks')]
