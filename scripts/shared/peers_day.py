"""A day of a station with its tills and dispensers."""

from shared.checks import Failed
from shared.running import run
from shared.station import NOTICE, decode, is_accepted, receive_message


class PeersDay:
    """A station's day, and its tills and dispensers, each with a connection that stays."""

    def __init__(self, program, day):
        self.program, self.day, self.peers = program, day, {}

    def tell(self, *messages):
        """Tills and dispensers send messages; each is answered before the next one is sent.
        Returns the last reply."""
        for message in messages:
            node = tuple(message[2:4])
            if node not in self.peers:
                self.peers[node] = self.day.connect()
            self.peers[node].sendall(message)
            while (reply := decode(receive_message(self.peers[node]))[0]).kind == NOTICE:
                pass
        return reply

    def say(self, *lines):
        """The same in words."""
        spelled = run(self.program, "spell", given="".join(f"{x}\n" for x in lines).encode())
        return self.tell(*map(bytes.fromhex, spelled.out.decode().splitlines()))

    def work(self, day):
        """Tills and dispensers say what a day has, and nothing of it is refused."""
        spelled = run(self.program, "spell", given=day.text().encode())
        for words, line in zip(day.lines, spelled.out.decode().splitlines(), strict=True):
            if not is_accepted(self.tell(bytes.fromhex(line))):
                raise Failed(f"'{words}' is refused")

    def leave(self):
        """All tills and dispensers hang up."""
        for peer in self.peers.values():
            peer.close()
