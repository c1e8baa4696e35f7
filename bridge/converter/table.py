"""The table of all commands of the Server Command Reference, by their addresses and by their numbers."""
from .buffers import BUFFERS
from .bus_commands import CONTROL_BUSES
from .changes import CHANGES
from .file_commands import SOUND_FILES
from .measures import Refused
from .node_commands import NODES
from .node_queries import QUERIES
from .server_commands import SERVER

COMMANDS = {command.address: command
            for command in [*SERVER, *NODES, *QUERIES, *CONTROL_BUSES, *BUFFERS, *CHANGES, *SOUND_FILES]}
NUMBERS = {command.number: command for command in COMMANDS.values() if command.number is not None}


def command_of(address):
    """The command of an address or of a number."""
    found = (NUMBERS if isinstance(address, int) else COMMANDS).get(address)
    if found is None:
        raise Refused("there is no such command")
    return found


def name_of(address):
    """An address, also of a command that is named by its number; a strange one isn't shown whole."""
    found = NUMBERS.get(address)
    return found.address if found else str(address)[:40]
