# For the documents of `nlshow --format json`; docs/json.md describes them.

# Makes an object of an array of attributes, and of the arrays in it, also of those of a peer. Of attributes of one name, the
# last remains, as the kernel uses the last; units and errors are dropped. Anything else is unchanged.
def o:
  if type == "array" and all(.[]; type == "object")
  then reduce (.[] | select(has("name"))) as $it ({}; .[$it.name] = ($it.value | o))
  elif type == "object" and has("attrs") then .attrs |= o
  else . end;

# Makes an object of a document about a link: the time, the index, the names of the flags, and the attributes, as `o` makes
# them. Other documents are left out.
def link:
  select(.link) | (.packet.time // .time).utc as $utc | .link
  | {utc: $utc, index: .index, flags: .flags.names} + (.attrs | o);

# The same of what the kernel says of a link: no request to the kernel, no deletion, and no AF_BRIDGE message.
def told:
  select(.type.name == "RTM_NEWLINK" and .link.family.number == 0 and (.flags.names | index("REQUEST") | not)) | link;

# Of an object of `link` or `told`, what a bond is: its mode, and how often it checks its ports. Others are left out.
def bond:
  select(.linkinfo.kind == "bond") | .linkinfo.data as $data
  | {name: .ifname, mode: $data.mode.name, miimon: $data.miimon, arp_interval: $data.arp_interval};

# .. what a port of a bond or a bridge is: the index of its master, the kind of that, and its state.
def port:
  select(.linkinfo.slave_kind)
  | {name: .ifname, master: .master, kind: .linkinfo.slave_kind, state: .linkinfo.slave_data.state.name};

# .. the counters of a link that are not 0.
def counters: select(.stats64) | {name: .ifname} + (.stats64 | with_entries(select(.value != 0)));

# The name of each index, of an array of objects of `link` or `told`.
def names: reduce (.[] | select(.ifname)) as $it ({}; .[$it.index | tostring] = $it.ifname);

# Each link whose state is another than before, of a stream of objects of `link` or `told`. `was` is null for a new one.
def changes(links):
  foreach (links | select(.operstate)) as $it ({};
    .was = .seen[$it.index | tostring] | .now = $it.operstate.name | .seen[$it.index | tostring] = .now;
    select(.was != .now) | {utc: $it.utc, name: $it.ifname, was: .was, now: .now});
