"""The modules that bench and checks share: they stand in checks/support, and this package finds them there."""
import os

__path__ = [os.path.join(os.path.dirname(os.path.abspath(__file__)), os.pardir, os.pardir, "checks", "support")]
