"""The farm's totals (2.1), under their output names and in the order of the listing."""

# A total is the sum of the herds' figures of its name, where a herd has one ...
TOTALS = (
    "n_excretion",
    "tan_excretion",
    "n_into_housing",
    "tan_into_housing",
    "n_into_yard",
    "tan_into_yard",
    "n_into_grazing",
    "tan_into_grazing",
    "nh3_nhousing",
    "nh3_nyard",
    "nh3_ngrazing",
    "nh3_nhousing_and_yard",
    "nh3_nlivestock",
    "n2_ngrazing",
    "no_ngrazing",
    "n2o_ngrazing",
    "n_remain_grazing",
    "tan_remain_grazing",
)
# ... except these two, which add up totals that stand before them.
SUMS_OF_TOTALS = {
    "nh3_nhousing_and_yard": ("nh3_nhousing", "nh3_nyard"),
    "nh3_nlivestock": ("nh3_nhousing_and_yard", "nh3_ngrazing"),
}


def totals(herds_figures):
    """The totals of a farm, from the figures of each of its herds."""
    farm = {}
    for name in TOTALS:
        if name in SUMS_OF_TOTALS:
            farm[name] = sum(farm[part] for part in SUMS_OF_TOTALS[name])
        else:
            farm[name] = sum(figures.get(name, 0) for figures in herds_figures)
    return farm
