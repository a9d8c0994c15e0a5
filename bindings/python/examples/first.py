"""Writes the request that makes a bond, and prints the bonds in a buffer of messages: here, in this request."""
from nlroute import Family, List, Request, messages

options = List(Family.BOND, {"IFLA_BOND_MODE": "802.3ad", "IFLA_BOND_MIIMON": 100})
request = bytes(Request.create("bond0").options(options))

for message in messages(request):
    if bond := message.held(Family.BOND):
        print(bond)
