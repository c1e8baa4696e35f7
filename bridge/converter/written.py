"""Files that a score writes of its buffers: their samples are asked for in it, and written once it is rendered."""
from typing import NamedTuple

from . import soundfiles
from .buffers import answered
from .osc import Message
from .replies import back

GET = "/b_getn"


class Written(NamedTuple):
    """A file of samples that `asked` asks for; `words` are those of `/b_write` for its form."""

    path: str
    words: list
    channels: int
    rate: float
    asked: list[Message]

    def write(self, values):
        data = soundfiles.written(self.words, self.channels, self.rate, values)
        with open(self.path.encode("latin-1"), "wb") as file:
            file.write(data)


def is_answer(reply):
    return reply.address == "/b_setn" or reply.address == "/fail" and reply.arguments[:1] == [GET]


def write_all(session, sent, replies):
    """Writes the files of a score, of which `sent` was sent, from the replies to it; it answers what can't be
    written."""
    asked = [id(message) for message in sent if message.address == GET]
    answers = dict(zip(asked, filter(is_answer, replies)))
    for file in session.writes:
        came = [back(session, answers[id(each)]) for each in file.asked if id(each) in answers]
        values = answered(came)
        if len(values) < sum(each.arguments[2] for each in file.asked):
            yield f"{file.path}: its samples aren't among the replies"
            continue
        try:
            file.write(values)
        except OSError as wrong:
            yield f"{file.path}: {wrong.strerror}"
