"""The jobs of examples/overlap and of `gen`, for cases/lawful.py: with the handles, lengths and indices that their lines leave to the
program.
"""

FILTER = "filter add dev eth0 ingress protocol ip pref 10 handle {0} flower dst_ip 10.0.0.{0}/32 action drop index {0}"
OVERLAP_JOB = {"workers": 2, "controls": 1, "outs": [None, "passed.pcap"], "first": 1, "rounds": [
    ([(1, False, ["#", "qdisc add dev eth0 clsact", FILTER.format(1)])], "ingress", []),
    ([(1, False, ["#", FILTER.format(2), "filter del dev eth0 ingress pref 10 handle 1 flower"])], "ingress",
     ["10.0.0.1", "10.0.0.2", "10.0.0.1", "10.0.0.2"]),
]}


def generated_job(count, front):
    """The job that `gen` makes for so many filters."""
    line = "filter add dev eth0 ingress protocol ip pref 10 handle {} flower dst_ip {}/32 action {}"
    address = [f"10.0.{it // 256}.{it % 256}" for it in range(2 * count)]
    filters = [line.format(it + 1, address[it], "drop index 1" if it % 4 == 3 else "ok index 2") for it in range(count)]
    return {"workers": 4, "controls": 1, "outs": [None, f"{front}.out.pcap"], "first": 0, "rounds": [
        ([(1, False, ["qdisc add dev eth0 clsact", *filters])], "ingress", []),
        ([], "ingress", address * 12),
    ]}
