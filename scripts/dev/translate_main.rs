//! Counts what tables, mixture and finder take of a network, for `translate.py`.
#![allow(unused, dead_code, private_interfaces)]

#[macro_use]
pub mod plain;
// the crates

use net_model::{Net, Zone};
use plain::alloc::Global;
use zone_graph::KnownWalks;

fn main() {
    let words: std::vec::Vec<String> = std::env::args().skip(1).collect();
    let times: usize = words[1].parse().expect("how many times");
    let net = network(&words[2..]);
    match words[0].as_str() {
        "read" => (),
        "plan" => plan(&net, times as u32),
        "check" => (0..times).for_each(|_| judge(&net, &KnownWalks::none(Global))),
        "links" => judge_links(&net, times),
        other => panic!("{other}: check, links, plan or read"),
    }
}

/// The network of some files of configurations.
fn network(files: &[String]) -> Net {
    let mut all = plain::Vec::new(Global);
    for file in files {
        let text = std::fs::read(file).expect(file);
        let read = ios_reader::read_configs(Global, &text).ok().expect(file);
        all.append(&mut read.into_vec()).unwrap();
    }
    Net::build(Global, net_model::Configs::from_vec(all)).ok().expect("a network")
}

/// Judges a network without each of so many of its links.
fn judge_links(net: &Net, times: usize) {
    let links = failed_links::links(Global, net).ok().unwrap();
    let mut zones = ospf_routes::area_zones(Global, net).ok().unwrap();
    zones.push(Zone::One).unwrap();
    zones.push(Zone::Two).unwrap();
    let known = KnownWalks::of_zones(Global, net, zones.as_slice()).ok().unwrap();
    for link in links.as_slice().iter().step_by((links.len() / times).max(1)) {
        match failed_links::without(Global, net, *link) {
            Ok(rest) => judge(&rest, &known),
            Err(_) => println!("no network"),
        }
    }
}

/// Makes the tables of a network, its mixture and its finder, and looks at both ends and at the order of the routers' numbers.
#[inline(never)]
fn judge(net: &Net, known: &KnownWalks) {
    let old = ospf_routes::OspfRoutes::build_over(Global, net, known).ok().unwrap();
    let new = isis_routes::IsisRoutes::build_over(Global, net, known).ok().unwrap();
    let mixed = rib_mix::Mixed::build(Global, net, &old, &new).ok().unwrap();
    let mut finder = loop_finder::Finder::new(Global, &mixed).ok().unwrap();
    let routers = net.routers() as usize;
    let old_end = finder.state_fault(&std::vec![igp_theory::Phase::Old; routers]).is_none();
    let new_end = finder.state_fault(&std::vec![igp_theory::Phase::New; routers]).is_none();
    let order: std::vec::Vec<u32> = (0..net.routers()).collect();
    let fault = finder.order_fault(&order).map(|found| found.0);
    println!("{old_end} {new_end} {fault:?}");
}

/// Plans a network with a budget of branches.
#[inline(never)]
fn plan(net: &Net, budget: u32) {
    let known = KnownWalks::none(Global);
    let old = ospf_routes::OspfRoutes::build_over(Global, net, &known).ok().unwrap();
    let new = isis_routes::IsisRoutes::build_over(Global, net, &known).ok().unwrap();
    let mixed = rib_mix::Mixed::build(Global, net, &old, &new).ok().unwrap();
    match wave_oracle::plan_waves(Global, &mixed, budget).ok().unwrap() {
        plan_theory::Planned::Searched { found } => {
            let text = wave_oracle::planned_text(Global, plan_theory::Items::Routers, net, &found).ok().unwrap();
            println!("{} bytes", text.as_slice().len());
        }
        _ => println!("an end is unsound"),
    }
}
