"""Controls that follow audio buses: a synth just before theirs brings the signal to a control bus, once a block."""
from .limits import AUDIO_BUSES, CONTROL_BUSES, below
from .measures import Refused
from .osc import Message

NAME = "_follows_audio"
# A factor of so much of a sample makes of 1.0 there what it is in the measure of the control.
TEXT = f"""snova 1
def {NAME}
control from 0
control to 0
control factor 0
heard = In.ar from
scaled = Mul heard factor
Out.kr to scaled
end
"""


def free_bus(session):
    """The last control bus of which nothing is known."""
    for number in reversed(range(CONTROL_BUSES)):
        if ("bus", number) not in session.slots and number not in session.followed:
            return number
    raise Refused("no control bus is left through which it could follow an audio bus")


def followed(session, synth, control, audio):
    """The commands by which a control of a synth follows an audio bus."""
    below(audio, AUDIO_BUSES, "audio bus", "numAudioBusChannels")
    if not session.followed:
        session.first.append(Message("/d_recv", [TEXT.encode()]))
    if control in synth.helpers:
        helper, bus = synth.helpers[control]
        return [Message("/n_set", [helper, "from", audio]), Message("/n_map", [synth.number, control.name, bus])]
    helper, bus = session.nodes.number(-1), free_bus(session)
    synth.helpers[control] = helper, bus
    session.followed.add(bus)
    factor = round(control.slot.guess().scale)
    made = Message("/s_new", [NAME, helper, 2, synth.number, "from", audio, "to", bus, "factor", factor])
    return [made, Message("/n_map", [synth.number, control.name, bus])]


def n_mapa(session, number, pairs):
    found = []
    for synth in session.nodes.synths(number):
        for given, audio in pairs:
            control = synth.definition.control(given)
            if control and audio == -1:
                synth.maps.pop(control, None)
                found.append(Message("/n_map", [synth.number, control.name, -1]))
            elif control:
                found += followed(session, synth, control, audio)
                synth.maps[control] = f"a{audio}"
    return found


def abandoned(session, synth):
    """The commands that end what followed audio buses for a synth that has ended."""
    for _, bus in synth.helpers.values():
        session.followed.discard(bus)
    return [Message("/n_free", [helper]) for helper, _ in synth.helpers.values()]
