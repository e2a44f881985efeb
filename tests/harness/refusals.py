"""Why `live` refuses a line, in its words."""



NUMBERED = "sub and group want a number and a level: sub 3 50, group 1 FL"
UNKNOWN = "no such command; help lists the commands"
