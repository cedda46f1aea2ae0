"""A phone and a laptop edit one object while the phone is offline. README.md shows this program."""

from uuid import UUID

from realm_sync import CallTransport, Counter, Database, Server, table


@table("items")
class Item:
    id: UUID
    title: str
    quantity: Counter  # what devices add while they are apart all counts


server = Server()
phone, laptop = (Database(None, [Item], CallTransport(server.take)) for _ in range(2))
with phone.write() as tx:
    milk = tx.create(Item, title="Milk", quantity=1)
phone.synced(), laptop.synced()

phone.stop_sync()  # it is offline, and both edit
with phone.write() as tx:
    tx.add(Item, milk, "quantity", 2)
with laptop.write() as tx:
    tx.update(Item, milk, title="Oat milk")
    tx.add(Item, milk, "quantity", 3)
print("phone, offline:", phone[Item].get(milk).title, phone[Item].get(milk).quantity)

phone.start_sync(CallTransport(server.take))
laptop.synced(), phone.synced(), laptop.synced()
for name, device in {"phone": phone, "laptop": laptop}.items():
    print(f"{name}:", device[Item].get(milk).title, device[Item].get(milk).quantity)
    device.close()
server.close()
