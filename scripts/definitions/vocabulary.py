"""What the other files know of the specs by name, and the values that they draw, in one place: `d.names.X`."""
from names import *
from values import *
from outcomes import *
from readings import *
from quantifiers import *
from scenarios import *
from shortcuts import *
