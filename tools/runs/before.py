"""Rules as they were before: tests show that runs break under them which go on under the rules of now.

Names in BEFORE stand for these; machines and rules then do as they say.

taken_once      TakenBefore isn't forgotten where its first label is taken anew: two labels stand before each other
revoked_once    what isn't wanted any more is never asked back again: a lost answer stops the service
asks_lacking    a Fetch asks for nothing that is held: two hosts take two blocks from each other for ever
"""
BEFORE = set()
