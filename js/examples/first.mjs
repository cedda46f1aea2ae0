// A phone and a laptop edit one object while the phone is offline: python/examples/first.py in JavaScript.
import { counter, defineSchema, key, text } from 'realm-sync';
import { MemoryFiles, openDatabase, ServerNode } from 'realm-sync/node';

const schema = defineSchema({ items: { id: key.uuid(), title: text(), quantity: counter() } });
const server = await ServerNode.open(await new MemoryFiles().open('history'));
const sync = { transport: { exchange: (message) => server.take(message) } };
const phone = await openDatabase({ schema, sync });
const laptop = await openDatabase({ schema, sync });
const milk = await phone.write((tx) => tx.items.create({ title: 'Milk', quantity: 1 }));
await phone.synced();
await laptop.synced();

await phone.stopSync(); // it is offline, and both edit
await phone.write((tx) => tx.items.at(milk).quantity.add(2));
await laptop.write((tx) => {
  tx.items.update(milk, { title: 'Oat milk' });
  tx.items.at(milk).quantity.add(3);
});
const show = (name, { title, quantity }) => console.log(`${name}: ${title} ${quantity}`);
show('phone, offline', phone.items.get(milk));

await phone.startSync(sync);
for (const it of [laptop, phone, laptop]) await it.synced();
show('phone', phone.items.get(milk));
show('laptop', laptop.items.get(milk));
for (const it of [phone, laptop, server]) await it.close();
