//! The fastest plain searches on arrays: label numbers and nothing else. No area is judged, no event is written, nothing
//! is on the blank, no index is tested, and the working space is kept from one search to the next.

use crate::shapes::Profile;

pub struct Plain {
    firsts: Vec<u32>,
    tails: Vec<u32>,
    labels: Vec<u32>,
    waiting: Vec<(u32, u32)>,
    queue: Vec<u32>,
}

impl Plain {
    pub fn new(profile: &Profile) -> Self {
        let n = usize::from(profile.n);
        Plain {
            firsts: profile.firsts.iter().map(|&p| u32::from(p) - 1).collect(),
            tails: profile.tails.iter().map(|&x| u32::from(x) - 1).collect(),
            labels: vec![0; n],
            waiting: vec![(0, 0); n],
            queue: vec![0; n],
        }
    }

    pub fn labels(&self) -> &[u32] {
        &self.labels
    }

    /// Depth-first from element 1.
    pub fn depth_first(&mut self) -> u32 {
        self.labels.fill(0);
        // SAFETY: positions are below the number of tails, tails below n, and each element waits once at most.
        unsafe {
            let (mut v, mut next, mut top) = (0_usize, 1, 0);
            *self.labels.get_unchecked_mut(0) = 1;
            let mut p = *self.firsts.get_unchecked(0);
            let mut end = *self.firsts.get_unchecked(1);
            loop {
                if p < end {
                    let x = *self.tails.get_unchecked(p as usize) as usize;
                    p += 1;
                    if *self.labels.get_unchecked(x) == 0 {
                        next += 1;
                        *self.labels.get_unchecked_mut(x) = next;
                        *self.waiting.get_unchecked_mut(top) = (v as u32, p);
                        top += 1;
                        v = x;
                        p = *self.firsts.get_unchecked(v);
                        end = *self.firsts.get_unchecked(v + 1);
                    }
                } else if top == 0 {
                    return next;
                } else {
                    top -= 1;
                    let (u, q) = *self.waiting.get_unchecked(top);
                    v = u as usize;
                    p = q;
                    end = *self.firsts.get_unchecked(v + 1);
                }
            }
        }
    }

    /// Breadth-first from element 1.
    pub fn breadth_first(&mut self) -> u32 {
        self.labels.fill(0);
        // SAFETY: as above; each element is queued once at most.
        unsafe {
            *self.labels.get_unchecked_mut(0) = 1;
            *self.queue.get_unchecked_mut(0) = 0;
            let (mut at, mut last) = (0, 1);
            while at < last {
                let v = *self.queue.get_unchecked(at) as usize;
                at += 1;
                for p in *self.firsts.get_unchecked(v)..*self.firsts.get_unchecked(v + 1) {
                    let x = *self.tails.get_unchecked(p as usize);
                    if *self.labels.get_unchecked(x as usize) == 0 {
                        *self.queue.get_unchecked_mut(last) = x;
                        last += 1;
                        *self.labels.get_unchecked_mut(x as usize) = last as u32;
                    }
                }
            }
            last as u32
        }
    }
}
