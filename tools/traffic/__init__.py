"""What passes at ports, for the tools `stop`, `tap` and `play`.

words      ports and numbers among words, and counts in lines
frames     the frames in the bytes of one direction, as they come
replies    replies of a server as a text, written and read
playing    a script's connections at a port
comparing  replies that come, printed or compared with kept ones
"""
