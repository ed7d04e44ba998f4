// Takes a lock of the crate's, and has functions that are called as those of parking_lot.
use lockdep_record::Mutex;

mod parking_lot {
    pub mod raw_mutex {
        #[inline(never)]
        pub fn lock_slow(turns: u32) -> u32 {
            std::hint::black_box(turns)
        }
    }
}

static OWN: Mutex<u32> = Mutex::new(0);

fn main() {
    *OWN.lock().unwrap() += parking_lot::raw_mutex::lock_slow(1);
}
