//! Each allocation refused in turn: a call that returns a `Result` returns `Error::Memory`, or what it would have. And
//! each block goes back to the allocator by the size and the alignment with which it was taken. Zones lie in memory of
//! C, which tests/refuse.c refuses, if that was loaded before the C library.

use std::alloc::{GlobalAlloc, Layout, System};
use std::cell::Cell;
use std::ffi::CStr;
use std::fmt::Debug;
use std::os::raw::{c_char, c_long, c_void};
use std::sync::atomic::{AtomicUsize, Ordering};

use s2union::{CellId, CellUnion, Error, Rect, RegionCoverer, Shape, UnionFile, Zones};

thread_local! {
    /// The allocation of this thread that is refused, counted from 1; or 0, if none is left.
    static REFUSED: Cell<usize> = const { Cell::new(0) };
}

struct Refusing;

/// How many blocks were given back by another layout than they were taken by.
static OTHERS: AtomicUsize = AtomicUsize::new(0);

/// Each block has its layout before it, in as many bytes as keep its alignment.
fn with_head(layout: Layout) -> (Layout, usize) {
    let head = layout.align().max(16);
    (Layout::from_size_align(layout.size() + head, head).unwrap(), head)
}

impl Refusing {
    /// The block before these bytes, and the layout by which it was taken.
    unsafe fn noted(at: *mut u8, layout: Layout) -> (*mut u8, Layout) {
        let note: *mut usize = at.sub(16).cast();
        if (note.read(), note.add(1).read()) != (layout.size(), layout.align()) {
            OTHERS.fetch_add(1, Ordering::SeqCst);
        }
        let (whole, head) = with_head(Layout::from_size_align(note.read(), note.add(1).read()).unwrap());
        (at.sub(head), whole)
    }

    /// Notes the layout of a block; its bytes are after the note.
    unsafe fn note(block: *mut u8, layout: Layout) -> *mut u8 {
        if block.is_null() {
            return block;
        }
        let at = block.add(with_head(layout).1);
        let note: *mut usize = at.sub(16).cast();
        note.write(layout.size());
        note.add(1).write(layout.align());
        at
    }

    fn refuses(&self) -> bool {
        let left = REFUSED.with(Cell::get);
        REFUSED.with(|refused| refused.set(left.saturating_sub(1)));
        left == 1
    }
}

// SAFETY: the system's own allocator, except that it may return null, as any allocator may.
unsafe impl GlobalAlloc for Refusing {
    unsafe fn alloc(&self, layout: Layout) -> *mut u8 {
        if self.refuses() {
            std::ptr::null_mut()
        } else {
            Self::note(System.alloc(with_head(layout).0), layout)
        }
    }

    unsafe fn realloc(&self, at: *mut u8, layout: Layout, size: usize) -> *mut u8 {
        if self.refuses() {
            std::ptr::null_mut()
        } else {
            let (block, whole) = Self::noted(at, layout);
            let larger = Layout::from_size_align(size, layout.align()).unwrap();
            Self::note(System.realloc(block, whole, with_head(larger).0.size()), larger)
        }
    }

    unsafe fn dealloc(&self, at: *mut u8, layout: Layout) {
        let (block, whole) = Self::noted(at, layout);
        System.dealloc(block, whole)
    }
}

#[global_allocator]
static ALLOCATOR: Refusing = Refusing;

fn asked<T: Debug + PartialEq>(call: impl Fn() -> Result<T, Error>) {
    let wanted = call();
    assert!(wanted.is_ok());
    let mut refusals = 0;
    for turn in 1.. {
        REFUSED.with(|refused| refused.set(turn));
        let found = call();
        let left = REFUSED.with(|refused| refused.replace(0));
        if left > 0 {
            assert_eq!(found, wanted);
            break;
        }
        refusals += usize::from(found == Err(Error::Memory));
        assert!(found == wanted || found == Err(Error::Memory));
    }
    assert!(refusals > 0);
}

#[test]
fn each_allocation_refused_in_turn() {
    let leaves = (0..3000).map(|k| CellId::from_face_ij(k % 6, 17 * k, 31 * k).unwrap());
    let (x, y): (CellUnion, CellUnion) = (leaves.clone().take(2000).collect(), leaves.skip(1000).collect());
    let (bytes, rect) = (x.encode().unwrap(), Rect { face: 0, i0: 0, i1: 99, j0: 0, j1: 99 });
    let file = UnionFile::new(&bytes).unwrap();
    asked(|| x.union(&y));
    asked(|| x.intersection(&y));
    asked(|| x.difference(&y));
    asked(|| x.symmetric_difference(&y));
    asked(|| x.complement());
    asked(|| x.intersection_with_cell(x.cells()[0]));
    asked(|| CellUnion::union_of([&x, &y, &x]));
    asked(|| CellUnion::from_range(x.cells()[0], y.cells()[9]));
    asked(|| x.outer(3, 1000));
    asked(|| x.inner(30, 9000));
    asked(|| x.outer_in(&rect, 30, 9000));
    asked(|| rect.outer(30, 9000));
    asked(|| x.denormalized(30, 1, 9000));
    asked(|| x.ancestors());
    asked(|| x.encode());
    asked(|| CellUnion::decode(&bytes));
    asked(|| file.ancestors());
    asked(|| file.to_union());
    let (coverer, circle) = (RegionCoverer::default(), Shape::circle([2.0, 48.0], 5e4));
    asked(|| coverer.coverings(&circle));
    let few = CellUnion::from_ids([1, 91, 1 << 60]).unwrap();
    asked(|| few.outline());
    asked(|| few.boundary());
    // Lists that have more memory than they need, which go back by all of it.
    let mut cells = Vec::with_capacity(5000);
    cells.extend_from_slice(y.cells());
    let kept = CellUnion::from_cells(cells.clone()).into_cells();
    let mut ids: Vec<u64> = Vec::with_capacity(5000);
    ids.extend(kept.iter().map(|cell| cell.id()));
    drop((CellUnion::from_cells(cells), CellUnion::from_ids(ids), x.clone(), bytes));
    assert_eq!(OTHERS.load(Ordering::SeqCst), 0);
}

extern "C" {
    fn dlsym(library: *mut c_void, name: *const c_char) -> *mut c_void;
}

/// The functions of tests/refuse.c: what refuses an allocation of C, and how many blocks there are.
fn refusing_c() -> Option<(extern "C" fn(c_long) -> c_long, extern "C" fn() -> c_long)> {
    let found = ["refuse_memory\0", "blocks_taken\0"].map(|name| {
        let name = CStr::from_bytes_with_nul(name.as_bytes()).unwrap();
        // SAFETY: the name ends with a 0, and any library may have it.
        unsafe { dlsym(std::ptr::null_mut(), name.as_ptr()) }
    });
    // SAFETY: refuse.h declares them so.
    found
        .iter()
        .all(|at| !at.is_null())
        .then(|| unsafe { (std::mem::transmute(found[0]), std::mem::transmute(found[1])) })
}

#[test]
fn zones_without_memory() {
    let (refuse, blocks_taken) = match refusing_c() {
        Some(calls) => calls,
        None => return println!("tests/refuse.c is not loaded before the C library"),
    };
    let square = Shape::polygon(&[[[2.0, 48.0], [3.0, 48.0], [3.0, 49.0], [2.0, 49.0], [2.0, 48.0]]]);
    let ask = |zones: &mut Zones| zones.pairs(&[2.5, 9.0], &[48.5, 9.0], true);
    let (mut turns, mut is_refused) = (0, true);
    while is_refused {
        turns += 1;
        let (mut zones, before) = (Zones::default(), blocks_taken());
        refuse(turns);
        let (first, second) = (zones.add(&square), zones.add(&square));
        let pairs = ask(&mut zones);
        is_refused = refuse(0) >= turns;
        let added = [&first, &second].iter().filter(|number| number.is_ok()).count();
        let refusals = [first.err(), second.err(), pairs.as_ref().err().cloned()];
        assert!(refusals.iter().flatten().all(|error| *error == Error::Memory));
        assert!(pairs.map_or(true, |pairs| pairs.len() == added));
        assert_eq!(ask(&mut zones).unwrap().len(), added); // those that were added stay
        drop((zones, refusals));
        assert_eq!(blocks_taken(), before);
    }
    assert!(turns > 10);
}
