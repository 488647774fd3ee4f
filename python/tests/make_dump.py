#!/usr/bin/env python3
"""Makes a folder like that of mongodump with a collection of orders, to measure and to try the command with.

    python3 make_dump.py FOLDER                      # 3 million documents, 2.5 GB
    python3 make_dump.py FOLDER --documents 200000   # fewer

FOLDER/orders.bson and FOLDER/orders.metadata.json are the dump, and FOLDER/orders.shape is a shape that all documents fit but those at which `--refused` tells: of
these the total is a text. The same arguments make the same bytes.
"""

import argparse
import random
from pathlib import Path
from typing import BinaryIO, List

from documents import array, boolean, date, document, double, element, inner, int32, int64, null, object_id, text

SHAPE = """# Orders, as the shop writes them.
{
  _id: oid,
  at: datetime,
  status: <new,paid,sent,returned>,
  customer: {id: i64, name: string, email: string, address: {street: string, city: string, zip: string, country: string}},
  items: [{sku: string, title: string, qty: i32, price: double, options: [string]}],
  stock: [string: i32],      # by warehouse
  total: double,
  paid: bool,
  coupon: ?string,
  note: ?string,
  version: i64
}
"""

METADATA = (
    '{"options":{},"indexes":[{"v":{"$numberInt":"2"},"key":{"_id":{"$numberInt":"1"}},"name":"_id_"}],"uuid":"0f7a3a3c1e1f4d0aa8a2f0c9e3f1b2d4",'
    '"collectionName":"orders","type":"collection"}'
)

WORDS = "amber basket copper door eleven fog garden hill iron jar kettle lamp mirror needle orchard paper quill river stone table umbrella velvet window yarn".split()
CITIES = ["Berlin", "Lisbon", "Oslo", "Turin", "Vienna", "Zürich", "København", "Łódź"]
STATUSES = ["new", "paid", "paid", "sent", "sent", "sent", "sent", "returned"]
WAREHOUSES = ["%s%d" % (letter, number) for letter in "abcdefgh" for number in range(1, 6)]


def words(chance: random.Random, count: int) -> str:
    return " ".join(chance.choice(WORDS) for _ in range(count))


def customer(chance: random.Random) -> bytes:
    name = f"{chance.choice(WORDS).title()} {chance.choice(WORDS).title()}"
    address = [text("street", f"{words(chance, 1).title()} street {chance.randrange(200)}"), text("city", chance.choice(CITIES))]
    address += [text("zip", "%05d" % chance.randrange(100000)), text("country", chance.choice(["DE", "PT", "NO", "IT", "AT", "CH"]))]
    parts = [int64("id", chance.randrange(10**6)), text("name", name), text("email", f"{name.replace(' ', '.').lower()}@example.org"), inner("address", *address)]
    return inner("customer", *parts)


def item(chance: random.Random) -> bytes:
    options = [text(str(place), chance.choice(WORDS)) for place in range(chance.randrange(3))]
    parts = [text("sku", "%s-%04d" % (chance.choice("ABCDE"), chance.randrange(3000))), text("title", words(chance, 3)), int32("qty", chance.randrange(1, 5))]
    return document(*parts, double("price", chance.randrange(100, 20000) / 100), array("options", *options))


def items(chance: random.Random) -> bytes:
    return array("items", *(element(0x03, str(place), item(chance)) for place in range(chance.randrange(1, 7))))


def end(chance: random.Random) -> bytes:
    """The fields behind the items, but for the total and the version."""
    stock = inner("stock", *(int32(name, chance.randrange(50)) for name in chance.sample(WAREHOUSES, 3)))
    coupon = [text("coupon", f"SAVE{chance.randrange(5, 50)}")] if chance.random() < 0.1 else []
    note = [null("note")] if chance.random() < 0.05 else [text("note", words(chance, chance.randrange(8, 54)))] if chance.random() < 0.8 else []
    return b"".join([stock, boolean("paid", chance.random() < 0.9), *coupon, *note])


def order(chance: random.Random, pools: List[List[bytes]], number: int, is_refused: bool) -> bytes:
    """An order: its own id, date, status and total, with parts from the pools."""
    own = [object_id("_id", "%08x%016x" % (0x65000000 + number // 16, number)), date("at", 1700000000000 + 977 * number), text("status", chance.choice(STATUSES))]
    total = text("total", "12.50") if is_refused else double("total", chance.randrange(100, 100000) / 100)
    version = int32("version", number % 7) if number % 3 else int64("version", number % 7)
    return document(*own, *(chance.choice(pool) for pool in pools), total, version)


def write_orders(file: BinaryIO, count: int, refused: int) -> None:
    chance = random.Random(71)
    pools = [[make(chance) for _ in range(4000)] for make in (customer, items, end)]
    every = count // refused if refused else 0
    for start in range(0, count, 10000):
        numbers = range(start, min(count, start + 10000))
        file.write(b"".join(order(chance, pools, number, every > 0 and number % every == every // 2) for number in numbers))


def main() -> None:
    parser = argparse.ArgumentParser(description=__doc__, formatter_class=argparse.RawDescriptionHelpFormatter)
    parser.add_argument("folder", type=Path)
    parser.add_argument("--documents", type=int, default=3_000_000)
    parser.add_argument("--refused", type=int, default=80, help="how many documents do not fit the shape")
    options = parser.parse_args()
    options.folder.mkdir(parents=True, exist_ok=True)
    (options.folder / "orders.shape").write_text(SHAPE, encoding="utf-8")
    (options.folder / "orders.metadata.json").write_text(METADATA, encoding="utf-8")
    with open(options.folder / "orders.bson", "wb") as file:
        write_orders(file, options.documents, options.refused)


if __name__ == "__main__":
    main()
