#!/bin/sh
# Exits with 0 while the report on the orders in "$1" divides by zero. Any other failure of the report is
# no, as where a candidate lacks a member that it reads.
timeout 10 python3 -c '
import json, sys

with open(sys.argv[1], encoding="utf-8") as file:
    customers = json.load(file)["customers"]
for customer in customers:
    for order in customer["orders"]:
        total = sum(line["units"] * line["price"] for line in order["lines"])
        grams = sum(parcel["grams"] for parcel in order["parcels"])
        print(order["number"], total, total / grams)
' "$1" 2>&1 >/dev/null | grep -q '^ZeroDivisionError'
