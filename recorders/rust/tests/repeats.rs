// What a thread does again and again is in its trace once.
use lockdep_record::Mutex;

static A: Mutex<i32> = Mutex::new(0);
static B: Mutex<i32> = Mutex::new(0);
static C: Mutex<i32> = Mutex::new(0);

fn main() {
    let _a = A.lock().unwrap();
    for turn in 0..1000 {
        let _b = B.lock().unwrap();
        if turn == 500 {
            drop(C.lock().unwrap());
        }
    }
}
