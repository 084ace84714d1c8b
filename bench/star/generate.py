#!/usr/bin/env python3
"""generate.py DIR [ROWS]: writes a star in the manner of the Star Schema Benchmark into DIR, the same at each run: a fact
table of ROWS rows (1,000,000) and twelve columns, and four dimensions."""
import os
import random
import sys

folder = sys.argv[1]
rows = int(sys.argv[2]) if len(sys.argv) > 2 else 1_000_000
random.seed(20261124)
REGIONS = {
    "AFRICA": ["ALGERIA", "ETHIOPIA", "KENYA", "MOROCCO", "MOZAMBIQUE"],
    "AMERICA": ["ARGENTINA", "BRAZIL", "CANADA", "PERU", "UNITED STATES"],
    "ASIA": ["CHINA", "INDIA", "INDONESIA", "JAPAN", "VIETNAM"],
    "EUROPE": ["FRANCE", "GERMANY", "ROMANIA", "RUSSIA", "UNITED KINGDOM"],
    "MIDDLE EAST": ["EGYPT", "IRAN", "IRAQ", "JORDAN", "SAUDI ARABIA"],
}
NATIONS = [(nation, region) for region, nations in REGIONS.items() for nation in nations]
MODES = ["AIR", "FOB", "MAIL", "RAIL", "REG AIR", "SHIP", "TRUCK"]
CUSTOMERS, SUPPLIERS, PARTS = 5_000, 2_000, 33_000

os.makedirs(folder, exist_ok=True)
with open(f"{folder}/catalog.txt", "w") as out:
    out.write(
        "fact lineorder\n"
        "col lo_orderkey int\ncol lo_linenumber int\ncol lo_custkey int\ncol lo_partkey int\ncol lo_suppkey int\n"
        "col lo_orderdate int\ncol lo_quantity int\ncol lo_extendedprice int\ncol lo_discount int\ncol lo_revenue int\n"
        "col lo_supplycost int\ncol lo_shipmode text\n"
        "dim date key d_datekey\ncol d_datekey int\ncol d_year int\ncol d_yearmonthnum int\ncol d_weeknuminyear int\n"
        "dim customer key c_custkey\ncol c_custkey int\ncol c_city text\ncol c_nation text\ncol c_region text\n"
        "dim supplier key s_suppkey\ncol s_suppkey int\ncol s_city text\ncol s_nation text\ncol s_region text\n"
        "dim part key p_partkey\ncol p_partkey int\ncol p_mfgr text\ncol p_category text\ncol p_brand1 text\n"
    )

days = []
with open(f"{folder}/date.csv", "w") as out:
    out.write("d_datekey,d_year,d_yearmonthnum,d_weeknuminyear\n")
    for year in range(1992, 1999):
        number = 0
        for month, length in enumerate([31, 28, 31, 30, 31, 30, 31, 31, 30, 31, 30, 31], 1):
            for day in range(1, length + 1):
                key = year * 10000 + month * 100 + day
                days.append(key)
                out.write(f"{key},{year},{year * 100 + month},{number // 7 + 1}\n")
                number += 1


def places(name, prefix, count):
    with open(f"{folder}/{name}.csv", "w") as out:
        out.write(f"{prefix}_{'cust' if prefix == 'c' else 'supp'}key,{prefix}_city,{prefix}_nation,{prefix}_region\n")
        for key in range(1, count + 1):
            nation, region = random.choice(NATIONS)
            out.write(f"{key},{nation[:9]}{random.randrange(10)},{nation},{region}\n")


places("customer", "c", CUSTOMERS)
places("supplier", "s", SUPPLIERS)
with open(f"{folder}/part.csv", "w") as out:
    out.write("p_partkey,p_mfgr,p_category,p_brand1\n")
    for key in range(1, PARTS + 1):
        maker, category, brand = random.randint(1, 5), random.randint(1, 5), random.randint(1, 40)
        out.write(f"{key},MFGR#{maker},MFGR#{maker}{category},MFGR#{maker}{category}{brand}\n")

with open(f"{folder}/lineorder.csv", "w") as out:
    out.write(
        "lo_orderkey,lo_linenumber,lo_custkey,lo_partkey,lo_suppkey,lo_orderdate,lo_quantity,lo_extendedprice,lo_discount,"
        "lo_revenue,lo_supplycost,lo_shipmode\n"
    )
    order = line = lines = customer = date = 0
    for _ in range(rows):
        if line == lines:
            order, line, lines = order + 1, 0, random.randint(1, 7)
            customer, date = random.randint(1, CUSTOMERS), random.choice(days)
        line += 1
        quantity, discount, price = random.randint(1, 50), random.randint(0, 10), random.randint(900, 2000)
        extended = quantity * price
        out.write(
            f"{order},{line},{customer},{random.randint(1, PARTS)},{random.randint(1, SUPPLIERS)},{date},{quantity},"
            f"{extended},{discount},{extended * (100 - discount) // 100},{6 * price // 10},{random.choice(MODES)}\n"
        )
