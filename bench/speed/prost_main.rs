//! Decodes framed discovery responses and their records with prost, as a measure for `hbone`.
//! usage: prost_main decode|map < INPUT      (`map` also holds the last record of each kind and name)

use prost::{Message, Oneof};
use std::collections::{BTreeMap, HashMap};
use std::io::Read;

#[derive(Clone, PartialEq, Message)]
struct Response {
    #[prost(string, tag = "1")]
    system_version_info: String,
    #[prost(message, repeated, tag = "2")]
    resources: Vec<Resource>,
    #[prost(string, tag = "4")]
    type_url: String,
    #[prost(string, tag = "5")]
    nonce: String,
    #[prost(string, repeated, tag = "6")]
    removed_resources: Vec<String>,
}

#[derive(Clone, PartialEq, Message)]
struct Resource {
    #[prost(string, tag = "1")]
    version: String,
    #[prost(message, optional, tag = "2")]
    resource: Option<Any>,
    #[prost(string, tag = "3")]
    name: String,
}

#[derive(Clone, PartialEq, Message)]
struct Any {
    #[prost(string, tag = "1")]
    type_url: String,
    #[prost(bytes = "vec", tag = "2")]
    value: Vec<u8>,
}

#[derive(Clone, PartialEq, Message)]
struct Address {
    #[prost(oneof = "AddressKind", tags = "1, 2")]
    kind: Option<AddressKind>,
}

#[derive(Clone, PartialEq, Oneof)]
enum AddressKind {
    #[prost(message, tag = "1")]
    Workload(Workload),
    #[prost(message, tag = "2")]
    Service(Service),
}

#[derive(Clone, PartialEq, Message)]
struct Workload {
    #[prost(string, tag = "1")]
    name: String,
    #[prost(string, tag = "2")]
    namespace: String,
    #[prost(bytes = "vec", repeated, tag = "3")]
    addresses: Vec<Vec<u8>>,
    #[prost(string, tag = "4")]
    network: String,
    #[prost(int32, tag = "5")]
    tunnel_protocol: i32,
    #[prost(string, tag = "6")]
    trust_domain: String,
    #[prost(string, tag = "7")]
    service_account: String,
    #[prost(message, optional, tag = "8")]
    waypoint: Option<GatewayAddress>,
    #[prost(string, tag = "9")]
    node: String,
    #[prost(string, repeated, tag = "16")]
    authorization_policies: Vec<String>,
    #[prost(int32, tag = "17")]
    status: i32,
    #[prost(string, tag = "20")]
    uid: String,
    #[prost(string, tag = "21")]
    hostname: String,
    #[prost(map = "string, message", tag = "22")]
    services: HashMap<String, PortList>,
}

#[derive(Clone, PartialEq, Message)]
struct PortList {
    #[prost(message, repeated, tag = "1")]
    ports: Vec<Port>,
}

#[derive(Clone, PartialEq, Message)]
struct Port {
    #[prost(uint32, tag = "1")]
    service_port: u32,
    #[prost(uint32, tag = "2")]
    target_port: u32,
}

#[derive(Clone, PartialEq, Message)]
struct Service {
    #[prost(string, tag = "1")]
    name: String,
    #[prost(string, tag = "2")]
    namespace: String,
    #[prost(string, tag = "3")]
    hostname: String,
    #[prost(message, repeated, tag = "4")]
    addresses: Vec<NetworkAddress>,
    #[prost(message, repeated, tag = "5")]
    ports: Vec<Port>,
    #[prost(message, optional, tag = "7")]
    waypoint: Option<GatewayAddress>,
}

#[derive(Clone, PartialEq, Message)]
struct NetworkAddress {
    #[prost(string, tag = "1")]
    network: String,
    #[prost(bytes = "vec", tag = "2")]
    address: Vec<u8>,
}

#[derive(Clone, PartialEq, Message)]
struct GatewayAddress {
    #[prost(oneof = "Destination", tags = "1, 2")]
    destination: Option<Destination>,
    #[prost(uint32, tag = "3")]
    hbone_mtls_port: u32,
}

#[derive(Clone, PartialEq, Oneof)]
enum Destination {
    #[prost(message, tag = "1")]
    Hostname(NamespacedHostname),
    #[prost(message, tag = "2")]
    Address(NetworkAddress),
}

#[derive(Clone, PartialEq, Message)]
struct NamespacedHostname {
    #[prost(string, tag = "1")]
    namespace: String,
    #[prost(string, tag = "2")]
    hostname: String,
}

#[derive(Clone, PartialEq, Message)]
struct Authorization {
    #[prost(string, tag = "1")]
    name: String,
    #[prost(string, tag = "2")]
    namespace: String,
    #[prost(int32, tag = "3")]
    scope: i32,
    #[prost(int32, tag = "4")]
    action: i32,
    #[prost(message, repeated, tag = "5")]
    rules: Vec<Rule>,
}

#[derive(Clone, PartialEq, Message)]
struct Rule {
    #[prost(message, repeated, tag = "2")]
    clauses: Vec<Clause>,
}

#[derive(Clone, PartialEq, Message)]
struct Clause {
    #[prost(message, repeated, tag = "2")]
    matches: Vec<Match>,
}

#[derive(Clone, PartialEq, Message)]
struct Match {
    #[prost(message, repeated, tag = "1")]
    namespaces: Vec<StringMatch>,
    #[prost(message, repeated, tag = "2")]
    not_namespaces: Vec<StringMatch>,
    #[prost(message, repeated, tag = "3")]
    principals: Vec<StringMatch>,
    #[prost(message, repeated, tag = "4")]
    not_principals: Vec<StringMatch>,
    #[prost(message, repeated, tag = "5")]
    source_ips: Vec<Prefix>,
    #[prost(message, repeated, tag = "6")]
    not_source_ips: Vec<Prefix>,
    #[prost(message, repeated, tag = "7")]
    destination_ips: Vec<Prefix>,
    #[prost(message, repeated, tag = "8")]
    not_destination_ips: Vec<Prefix>,
    #[prost(uint32, repeated, tag = "9")]
    destination_ports: Vec<u32>,
    #[prost(uint32, repeated, tag = "10")]
    not_destination_ports: Vec<u32>,
}

#[derive(Clone, PartialEq, Message)]
struct Prefix {
    #[prost(bytes = "vec", tag = "1")]
    address: Vec<u8>,
    #[prost(uint32, tag = "2")]
    length: u32,
}

#[derive(Clone, PartialEq, Message)]
struct StringMatch {
    #[prost(oneof = "MatchKind", tags = "1, 2, 3, 4")]
    kind: Option<MatchKind>,
}

#[derive(Clone, PartialEq, Oneof)]
enum MatchKind {
    #[prost(string, tag = "1")]
    Exact(String),
    #[prost(string, tag = "2")]
    Prefix(String),
    #[prost(string, tag = "3")]
    Suffix(String),
    #[prost(bytes = "vec", tag = "4")]
    Presence(Vec<u8>),
}

enum Record {
    Address(Address),
    Policy(Authorization),
}

fn main() {
    let holds = std::env::args().nth(1).as_deref() == Some("map");
    let mut input = Vec::new();
    std::io::stdin().read_to_end(&mut input).expect("input");
    let mut held: BTreeMap<(bool, String), (String, Record)> = BTreeMap::new();
    let mut records = 0u64;
    let mut left = input.as_slice();
    while left.len() >= 5 {
        let size = u32::from_be_bytes([left[1], left[2], left[3], left[4]]) as usize;
        let response = Response::decode(&left[5..5 + size]).expect("a response");
        left = &left[5 + size..];
        for resource in response.resources {
            let any = resource.resource.expect("a record");
            let policy = any.type_url.ends_with("Authorization");
            let record = if policy {
                Record::Policy(Authorization::decode(any.value.as_slice()).expect("a policy"))
            } else {
                Record::Address(Address::decode(any.value.as_slice()).expect("an address"))
            };
            records += 1;
            if holds {
                held.insert((policy, resource.name), (resource.version, record));
            } else {
                std::hint::black_box(&record);
            }
        }
    }
    let policies = held.values().filter(|(_, r)| matches!(r, Record::Policy(p) if p.name.len() < 1000)).count();
    let addresses = held.values().filter(|(_, r)| matches!(r, Record::Address(a) if a.kind.is_some())).count();
    println!("{records} records, {addresses} addresses and {policies} policies held");
}
