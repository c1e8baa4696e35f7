"""What keeps a session going: it starts the server and the player, and comes back when one of them ends."""
