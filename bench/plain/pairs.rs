use std::io::Read;

/// For each leaf the pairs of states that react. The net's line names the same moves for every leaf.
fn main() {
    let mut input = String::new();
    std::io::stdin().read_to_string(&mut input).unwrap();
    let mut lines = input.lines();
    let net = lines.next().unwrap();
    let agents: usize = lines.next().unwrap().parse().unwrap();
    let moves = net.split("\"moves\":[[").nth(1).unwrap().split("]]").next().unwrap();
    let loud: Vec<(u8, u8)> = moves
        .split("],[")
        .map(|m| m.split(',').map(|n| n.parse().unwrap()).collect::<Vec<u8>>())
        .map(|m| (m[0], m[1]))
        .collect();
    let crowd: Vec<[u8; 8]> = (0..agents)
        .map(|n| std::array::from_fn(|digit| (n >> (2 * digit) & 3) as u8))
        .collect();
    let mut can = [[false; 256]; 8];
    for leaf in 0..8 {
        let mut counts = [0u32; 256];
        for agent in &crowd {
            counts[agent[leaf] as usize] += 1;
        }
        for (p, q) in &loud {
            let (p, q) = (*p as usize, *q as usize);
            if counts[p] > 0 && counts[q] > 0 && (p != q || counts[p] > 1) {
                can[leaf][p] = true;
                can[leaf][q] = true;
            }
        }
    }
    let restless = crowd.iter().any(|agent| (0..8).any(|leaf| can[leaf][agent[leaf] as usize]));
    std::process::exit(restless as i32);
}
