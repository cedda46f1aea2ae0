"""Two phones edit one note and one counter while they are offline, and sync with a server. Over a network `send` would be a
request of HTTP or over a socket; here it is a call."""

import os
import tempfile

from realm_sync import Busy, Client, Refused, Server

with tempfile.TemporaryDirectory() as folder, Server() as server:
    file = os.path.join(folder, "phone")
    with Client(file) as phone, Client() as tablet:
        phone.born("00000000-0000-4000-8000-000000000001")
        tablet.born("00000000-0000-4000-8000-000000000002")
        with phone.transaction(ms=1) as edits:
            edits.add_table("notes", "Int")
            edits.add_column("notes", "text", "Text")
            edits.add_column("notes", "read", "Int")
            edits.create("notes", 1)
        phone.sync(server.take)
        tablet.sync(server.take)

        # Offline, both edit: the counter gets both additions, the text the later write.
        with phone.transaction(ms=10) as edits:
            edits.update("notes", 1, "text", "buy bread")
            edits.add("notes", 1, "read", 3)
        with tablet.transaction(ms=11) as edits:
            edits.update("notes", 1, "text", "buy oat milk")
            edits.add("notes", 1, "read", 4)
        print("phone, offline:", list(phone.objects("notes")))
        print("tablet, offline:", list(tablet.objects("notes")))

        # A transaction that can't be is refused whole.
        try:
            with phone.transaction(ms=12) as edits:
                edits.add("notes", 1, "read", 1)
                edits.erase("notes", 9)
        except Refused as why:
            print("refused:", why)

        # The file is the phone's as long as it is open.
        try:
            Client(file)
        except Busy:
            print("busy")
        tablet.sync(server.take)

    # What was answered is in the file.
    with Client(file) as phone, Client() as third:
        third.born("00000000-0000-4000-8000-000000000003")
        places = phone.sync(server.take)
        third.sync(server.take)
        print("phone, to draw anew:", sorted({place["column"] for place in places}))
        print("phone, afterwards:", list(phone.objects("notes")))
        print("equal:", list(phone.lines()) == list(third.lines()) == list(server.lines()))
        print("note 1:", phone.object("notes", 1)["cells"], "note 2:", phone.object("notes", 2))
        print("unsent:", phone.standing().unsent)
