"""The programs that are registered for notifications, each with its number."""


class Clients:
    """Registered clients, of which the one that was heard of longest ago stands first."""

    def __init__(self, most):
        self.most, self.numbers = most, {}

    def __iter__(self):
        return iter(list(self.numbers))

    def __contains__(self, client):
        return client in self.numbers

    def number(self, client):
        return self.numbers[client]

    def hear(self, client):
        """Something came from a client."""
        if client in self.numbers:
            self.numbers[client] = self.numbers.pop(client)

    def register(self, client, wanted):
        """Gives a client the number that it wants, or the first that is free; it answers who had to go for it."""
        gone = next(iter(self.numbers)) if len(self.numbers) == self.most else None
        self.leave(gone)
        free = [number for number in range(self.most) if number not in self.numbers.values()]
        self.numbers[client] = wanted if wanted in free else free[0]
        return gone

    def leave(self, client):
        self.numbers.pop(client, None)
