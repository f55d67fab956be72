//! The same passes written by hand in plain Rust, with nothing proved: check, sums by degree, the way down, the river's pass and the merge.

const DEGREES: usize = 1000;
const OUTSIDE: u32 = 65535;

#[derive(Clone, Copy)]
struct Stream {
    hot: bool,
    low: usize,
    high: usize,
    rate: u64,
}

struct Loads {
    supply: [u64; DEGREES],
    demand: [u64; DEGREES],
}

fn read(four: &[u32], gap: u64) -> Result<Stream, u64> {
    let (mark, low, high, rate) = (four[0], four[1], four[2], four[3]);
    if mark > 1 || low >= high || u64::from(high) + gap > DEGREES as u64 || !(1..=1_000_000).contains(&rate) {
        return Err(2);
    }
    Ok(Stream { hot: mark == 1, low: low as usize, high: high as usize, rate: rate.into() })
}

fn check(numbers: &[u32], gap: u64, room: &[u32], streams: &mut [Stream; 64]) -> Result<usize, u64> {
    if numbers.len() % 4 != 0 || numbers.len() > 4 * streams.len() {
        return Err(1);
    }
    if gap > DEGREES as u64 {
        return Err(2);
    }
    for (stream, four) in streams.iter_mut().zip(numbers.chunks_exact(4)) {
        *stream = read(four, gap)?;
    }
    if room.len() < 6 * DEGREES {
        return Err(3);
    }
    Ok(numbers.len() / 4)
}

fn loads(streams: &[Stream], gap: usize) -> Loads {
    let mut loads = Loads { supply: [0; DEGREES], demand: [0; DEGREES] };
    for s in streams {
        let degrees = if s.hot { &mut loads.supply[s.low..s.high] } else { &mut loads.demand[s.low + gap..s.high + gap] };
        for heat in degrees {
            *heat += s.rate;
        }
    }
    loads
}

fn target(loads: &Loads) -> u64 {
    let (mut supply, mut demand, mut most) = (0u64, 0u64, 0u64);
    for (give, take) in loads.supply.iter().rev().zip(loads.demand.iter().rev()) {
        supply += give;
        demand += take;
        most = most.max(demand.saturating_sub(supply));
    }
    most
}

struct Writer<'a> {
    room: &'a mut [u32],
    transfers: usize,
}

impl Writer<'_> {
    fn add(&mut self, from: u32, to: u32, heat: u64) {
        if heat > 0 {
            let at = 3 * self.transfers;
            self.room[at..at + 3].copy_from_slice(&[from, to, heat as u32]);
            self.transfers += 1;
        }
    }
}

fn reject(loads: &Loads, heating: u64, out: &mut Writer) {
    let wanted: u64 = loads.demand.iter().sum();
    let mut given = heating;
    for (d, supply) in loads.supply.iter().enumerate().rev() {
        given += supply;
        out.add(d as u32, OUTSIDE, (*supply).min(given.saturating_sub(wanted)));
    }
}

fn serve(loads: &Loads, heating: u64, out: &mut Writer) {
    let (mut from, mut hot) = (DEGREES, heating);
    for (to, demand) in loads.demand.iter().enumerate().rev() {
        let mut cold = *demand;
        loop {
            let heat = hot.min(cold);
            let mark = if from < DEGREES { from as u32 } else { OUTSIDE };
            out.add(mark, to as u32, heat);
            hot -= heat;
            cold -= heat;
            if cold == 0 {
                break;
            }
            from -= 1;
            hot = loads.supply[from];
        }
    }
}

/// How many transfers and what is bought, or the refusal's number.
pub fn plan(numbers: &[u32], gap: u64, room: &mut [u32]) -> Result<(usize, u64), u64> {
    let mut streams = [Stream { hot: true, low: 0, high: 0, rate: 0 }; 64];
    let count = check(numbers, gap, room, &mut streams)?;
    let loads = loads(&streams[..count], gap as usize);
    let heating = target(&loads);
    let mut out = Writer { room, transfers: 0 };
    reject(&loads, heating, &mut out);
    serve(&loads, heating, &mut out);
    Ok((out.transfers, heating))
}
