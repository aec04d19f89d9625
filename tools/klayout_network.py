"""Extracts the network of a layout that rxc wrote with KLayout's device extractor, and writes it as a network text.

klayout -b -r tools/klayout_network.py -rd chip=FILE.cif -rd network=FILE.net

The geometry is KLayout's own: it reads the boxes, joins what conducts and finds the transistors. Labels, which KLayout passes over, are read here.
"""
import pya

UNITS = 200
layout = pya.Layout()
options = pya.LoadLayoutOptions()
# Coordinates have 32 bits there, so with the finest unit a layout may have at most a million lambda.
options.cif_dbu = 0.1
layout.read(chip, options)
top = layout.top_cell()
top.flatten(True)
found = {layout.get_info(i).name: i for i in layout.layer_indexes()}
it = pya.LayoutToNetlist(pya.RecursiveShapeIterator(layout, top, []))


def layer(name):
    return it.make_polygon_layer(found[name] if name in found else layout.layer(), name)


diffusion, poly, metal, cut, implant = (layer(name) for name in ("ND", "NP", "NM", "NC", "NI"))
channel, ends = diffusion & poly, diffusion - poly
it.register(ends, "ends")
for name, gate in (("pass", channel - implant), ("load", channel & implant)):
    it.register(gate, name)
    it.extract_devices(pya.DeviceExtractorMOS3Transistor(name), {"SD": ends, "G": gate, "P": poly})
for region in (ends, poly, metal, cut):
    it.connect(region)
    it.connect(region, cut)
it.extract_netlist()

circuit = it.netlist().circuit_by_name(top.name)
numbers = {net.cluster_id: k for k, net in enumerate(circuit.each_net())}
conducts = {"ND": ends, "NP": poly, "NM": metal}
pads = {}
for line in open(chip):
    if line.startswith("94 "):
        _, name, x, y, on = line.rstrip(" ;\n").split(" ")
        square = pya.Point(*(round((int(at) + UNITS // 2) * 0.01 / layout.dbu) for at in (x, y)))
        role, _, own = name.partition(":")
        pads[" ".join(filter(None, (role.lower(), own)))] = numbers[it.probe_net(conducts[on], square).cluster_id]

devices = []
for device in circuit.each_device():
    source, gate, drain = (numbers[device.net_for_terminal(end).cluster_id] for end in ("S", "G", "D"))
    if device.device_class().name == "pass":
        devices.append(f"pass {gate} {source} {drain}")
    else:
        assert {source, drain} == {gate, pads["vdd"]}, "a depletion device that is no load"
        devices.append(f"load {gate}")
with open(network, "w") as text:
    print("rxnet 1", f"nets {len(numbers)}", *(f"{name} {net}" for name, net in pads.items()), *devices, "end", sep="\n", file=text)
