"""What the tools beside the program share. None of them makes a datagram of levels or works out a
level: lines go to the program, and what is shown is what the program printed or sent."""
