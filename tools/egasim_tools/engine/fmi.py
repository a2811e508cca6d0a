"""The library of an FMU for co-simulation (FMI 2.0), called by ctypes. The standard's types and functions are declared
here, as far as they are called. A status other than OK, and a function that is missing, end the tool."""

import ctypes
import pathlib
import sys
from ctypes import CFUNCTYPE, POINTER, byref, c_char_p, c_double, c_int, c_size_t, c_uint, c_void_p

from egasim_tools.base.tool import TOOL, as_noted, fail

STATUSES = ("OK", "Warning", "Discard", "Error", "Fatal", "Pending")
CO_SIMULATION = 1
VALUES = {"Real": c_double, "Integer": c_int, "Boolean": c_int}  # of each kind of variables
# A message has more words behind its text, as `printf` takes them; they are left out.
LOGGER = CFUNCTYPE(None, c_void_p, c_char_p, c_int, c_char_p, c_char_p)


class Callbacks(ctypes.Structure):
    """What a library may call: it logs, and asks for memory and gives it back."""

    _fields_ = [("logger", LOGGER), ("allocate", c_void_p), ("free", c_void_p), ("step_finished", c_void_p),
                ("environment", c_void_p)]


# What each function takes, and what it returns: a status, where nothing else is said.
TAKES = {
    "SetupExperiment": (c_void_p, c_int, c_double, c_double, c_int, c_double),
    "DoStep": (c_void_p, c_double, c_double, c_int),
    "Instantiate": (c_char_p, c_int, c_char_p, c_char_p, POINTER(Callbacks), c_int, c_int),
    **{name: (c_void_p,) for name in ("FreeInstance", "EnterInitializationMode", "ExitInitializationMode", "Terminate", "Reset")},
    **{way + kind: (c_void_p, POINTER(c_uint), c_size_t, POINTER(value))
       for kind, value in VALUES.items() for way in ("Get", "Set")},
    "GetVersion": (), "GetTypesPlatform": (),
}
RETURNS = {"Instantiate": c_void_p, "FreeInstance": None, "GetVersion": c_char_p, "GetTypesPlatform": c_char_p}


class Instance:
    """An FMU at work. `says` is called with the name of each function before that is called."""

    def __init__(self, description, says):
        self.says = says
        says("loading the library")
        try:
            library = ctypes.CDLL(description.library)
            self.functions = {name: self.declared(library, name) for name in TAKES}
        except (OSError, AttributeError) as error:
            fail(f"the FMU's library can't be used: {error}")
        for name, wanted in ("GetVersion", b"2.0"), ("GetTypesPlatform", b"default"):
            told = self.call(name)
            if told != wanted:
                fail(f"fmi2{name} says {told}, and {wanted} is wanted")
        system = ctypes.CDLL(None)
        memory = (ctypes.cast(function, c_void_p) for function in (system.calloc, system.free))
        self.callbacks = Callbacks(LOGGER(logged), *memory, None, None)  # kept as long as the library may call them
        resources = pathlib.Path(description.resources).as_uri().encode()
        self.component = self.call("Instantiate", b"engine", CO_SIMULATION, description.guid.encode(), resources,
                                   byref(self.callbacks), 0, 0)
        if not self.component:
            fail(f"fmi2Instantiate gives no instance: is {description.guid} the library's GUID?")

    @staticmethod
    def declared(library, name):
        function = getattr(library, f"fmi2{name}")
        function.argtypes, function.restype = TAKES[name], RETURNS.get(name, c_int)
        return function

    def call(self, name, *words):
        """Calls a function. A status that isn't OK is told, and ends the tool."""
        self.says(f"fmi2{name}")
        answer = self.functions[name](*words)
        self.says("")
        if name not in RETURNS and answer != 0:
            status = STATUSES[answer] if 0 <= answer < len(STATUSES) else answer
            fail(f"fmi2{name} ended with the status {status}")
        return answer

    def begin(self, start):
        """Sets start values, (variable, value), and initializes."""
        self.set(start)
        self.call("SetupExperiment", self.component, 0, 0.0, 0.0, 0, 0.0)
        self.call("EnterInitializationMode", self.component)
        self.call("ExitInitializationMode", self.component)

    def reset(self):
        self.call("Reset", self.component)

    def step(self, now, size):
        self.call("DoStep", self.component, now, size, 1)

    def end(self):
        self.call("Terminate", self.component)
        self.call("FreeInstance", self.component)

    def set(self, values):
        """Sets variables: (variable, value), a call for each kind."""
        for variable, number in values:
            if variable.kind == "Integer" and not -2**31 <= number < 2**31:
                fail(f"{variable.name} = {number} is no number of 32 bits")
        for kind, value in VALUES.items():
            of_kind = [(variable.reference, number) for variable, number in values if variable.kind == kind]
            if of_kind:
                references, numbers = zip(*of_kind)
                self.call(f"Set{kind}", self.component, (c_uint * len(of_kind))(*references), len(of_kind),
                          (value * len(of_kind))(*numbers))

    def get(self, variables):
        """The values of variables, by their names."""
        told = {}
        for kind, value in VALUES.items():
            of_kind = [variable for variable in variables if variable.kind == kind]
            if of_kind:
                values = (value * len(of_kind))()
                self.call(f"Get{kind}", self.component, (c_uint * len(of_kind))(*(one.reference for one in of_kind)),
                          len(of_kind), values)
                told.update((one.name, number) for one, number in zip(of_kind, values))
        return told


def logged(_, instance, status, category, message):
    """Tells what a library logs."""
    words = (b"" if word is None else word for word in (category, message))
    told = " ".join(word.decode(errors="replace") for word in words)
    print(as_noted(f"{TOOL}: the FMU says: {told.strip()}"), file=sys.stderr, flush=True)
