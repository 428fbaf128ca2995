"""Random networks of four to eight routers, of one or two areas with ranges, and calls on them."""

import random

COSTS = (1, 10, 100)


class RandomNetwork:
    """A tree of links and some more, each with costs of OSPF and a metric of IS-IS. What is random goes by `chosen`."""

    def __init__(self, chosen, count, has_two_areas):
        self.count = count
        links = {(chosen.randint(1, router - 1), router) for router in range(2, count + 1)}
        links |= {tuple(sorted(chosen.sample(range(1, count + 1), 2))) for _ in range(chosen.randint(1, count))}
        is_lopsided = chosen.random() < 0.3
        self.costs, self.metrics, self.area = {}, {}, {}
        for link in sorted(links):
            self.area[link] = chosen.choice((0, 1)) if has_two_areas else 0
            cost, back, metric = chosen.choice(COSTS), chosen.choice(COSTS), 10 * chosen.choice(COSTS)
            self.costs[link] = (cost, back if is_lopsided else cost)
            self.metrics[link] = (metric, metric)
        self.ranges = {router: chosen.choice(("", "", " cost 5", " not-advertise")) for router in self.routers()
                       if self.areas(router) == {0, 1} and chosen.random() < 0.6}

    def routers(self):
        return range(1, self.count + 1)

    def areas(self, router):
        return {area for link, area in self.area.items() if router in link}

    def text(self, kind):
        """The configurations: with "both" protocols, or OSPF alone, "old", or in one area and costing the metrics, "new"."""
        return "".join(self.router(router, kind) for router in self.routers())

    def router(self, router, kind):
        isis, areas = " ip router isis\n" if kind == "both" else "", self.areas(router)
        text = f"hostname R{router}\ninterface Loopback0\n ip address 10.{min(areas)}.0.{router} 255.255.255.255\n{isis}"
        for place, link in enumerate(link for link in self.area if router in link):
            end = link.index(router)
            cost = (self.metrics if kind == "new" else self.costs)[link][end]
            subnet = f"10.{self.area[link]}.{link[0]}{link[1]}"
            text += f"interface GigabitEthernet0/{place}\n ip address {subnet}.{end + 1} 255.255.255.252\n ip ospf cost {cost}\n"
            text += f"{isis} isis metric {self.metrics[link][end]}\n" if isis else ""
        if kind == "new":
            return text + "router ospf 2\n network 10.0.0.0 0.255.255.255 area 0\n distance 255\nend\n"
        text += "router ospf 1\n" + "".join(f" network 10.{area}.0.0 0.0.255.255 area {area}\n" for area in sorted(areas))
        if router in self.ranges:
            text += f" area 1 range 10.1.0.0 255.255.0.0{self.ranges[router]}\n"
        if isis:
            text += f"router isis\n net 49.0001.0000.0000.{router:04}.00\n is-type level-2-only\n"
            text += " metric-style wide\n distance 255\n"
        return text + "end\n"


def random_calls(seed):
    """Files by name, and calls on them, each with the call that a program without pairs answers alike.

    A new OSPF that costs what IS-IS does has the same hops, so `pair` answers as `plan` does.
    """
    chosen = random.Random(seed)
    count = chosen.randint(4, 8)
    network = RandomNetwork(chosen, count, chosen.random() < 0.7)
    names = [f"R{router}" for router in chosen.sample(network.routers(), count)]
    first = chosen.randint(1, count)
    waves = ["order 2"] + ["wave " + " ".join(wave) for wave in (names[:first], names[first:]) if wave]
    files = {"network.cfg": network.text("both"), "old.cfg": network.text("old"), "new.cfg": network.text("new"),
             "order.txt": "\n".join(["order 1"] + names + [""]), "waves.txt": "\n".join(waves + [""])}
    calls = ["plan network.cfg", "plan --budget 2 network.cfg", "check order.txt network.cfg", "check waves.txt network.cfg"]
    calls = [(call, call) for call in calls] + [("pair old.cfg new.cfg", "plan network.cfg")]
    return files, [(by_model.split(" "), by_program.split(" ")) for by_model, by_program in calls]
