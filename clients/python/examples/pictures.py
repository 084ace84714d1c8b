"""pictures.py DIR SVG: draws two pictures of the star that bench/star/generate.py wrote into DIR."""

import sys

import matplotlib
import pandas
from matplotlib import pyplot

from xcols import Folder

matplotlib.rcParams.update({"svg.fonttype": "none", "axes.spines.top": False, "axes.spines.right": False, "legend.frameon": False})
JOINED = "FROM lineorder, date, supplier WHERE lo_orderdate = d_datekey AND lo_suppkey = s_suppkey"
star = Folder(sys.argv[1])
star.load(rows=2_000)
figure, (left, right) = pyplot.subplots(1, 2, figsize=(9, 3.2), layout="constrained")

# A result is a DataFrame.
years = star.query(f"SELECT d_year, s_region, SUM(lo_revenue) / 1000000 AS revenue {JOINED} GROUP BY d_year, s_region").to_frame()
years.pivot(index="d_year", columns="s_region", values="revenue").plot(ax=left, ylabel="revenue, millions", legend=False)

# A gather in progress: the query over the fragments that were answered so far.
previews = star.previews(f"SELECT s_region, AVG(lo_revenue) AS mean {JOINED} GROUP BY s_region")
means = {seen.answered: dict(seen.result.rows) for seen in previews}
pandas.DataFrame(means).T.plot(ax=right, xlabel="fragments answered", ylabel="average revenue so far")
right.legend(bbox_to_anchor=(1, 1), loc="upper left")

figure.savefig(sys.argv[2], metadata={"Date": None})
