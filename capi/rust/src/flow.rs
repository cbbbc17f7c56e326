//! What control reaches.

use crate::error::{taken, Error};
use crate::info::FlowControl;
use crate::sys::{FlowOut, Library};
use alloc::vec;
use alloc::vec::Vec;

/// What is at a reached offset.
///
/// ```
/// use feddurzai::{flow_graph, FlowControl, ReachedKind};
///
/// // jmp to its own end, and 06, with which no instruction of 64-bit code begins
/// let graph = flow_graph(64, 0, b"\xEB\x00\x06", &[0])?;
/// assert_eq!(graph.reached()[0].kind, ReachedKind::Instruction(FlowControl::UnconditionalBranch));
/// assert_eq!(graph.reached()[1].kind, ReachedKind::Invalid);
/// # Ok::<(), feddurzai::Error>(())
/// ```
#[derive(Clone, Copy, Debug, PartialEq, Eq, Hash)]
#[non_exhaustive]
pub enum ReachedKind {
    /// An instruction, with its flow.
    Instruction(FlowControl),
    /// Bytes with which no instruction begins: control ends there.
    Invalid,
    /// The bytes end before the instruction does.
    TooShort,
}

/// An offset that control reaches.
///
/// ```
/// use feddurzai::flow_graph;
///
/// let graph = flow_graph(64, 0, b"\x90\xC3", &[0])?;
/// assert_eq!((graph.reached()[1].offset, graph.reached()[1].leader), (1, 0));
/// # Ok::<(), feddurzai::Error>(())
/// ```
#[derive(Clone, Copy, Debug, PartialEq, Eq, Hash)]
pub struct Reached {
    /// The offset.
    pub offset: u32,
    /// The offset of the first instruction of its basic block.
    pub leader: u32,
    /// What is there.
    pub kind: ReachedKind,
}

/// A flow graph: the offsets that control reaches, in ascending order, and their basic blocks.
///
/// ```
/// use feddurzai::flow_graph;
///
/// // je 3; nop; ret
/// let graph = flow_graph(64, 0, b"\x74\x01\x90\xC3", &[0])?;
/// assert!(graph.reached().iter().map(|reached| reached.offset).eq([0, 2, 3]));
/// assert!(graph.leaders().eq([0, 2, 3]));
/// # Ok::<(), feddurzai::Error>(())
/// ```
#[derive(Clone, Debug, Default, PartialEq, Eq)]
pub struct FlowGraph {
    reached: Vec<Reached>,
}

impl FlowGraph {
    /// The reached offsets, in ascending order.
    #[must_use]
    pub fn reached(&self) -> &[Reached] {
        &self.reached
    }

    /// The offsets at which basic blocks begin, in ascending order.
    pub fn leaders(&self) -> impl Iterator<Item = u32> + '_ {
        self.reached.iter().filter(|reached| reached.offset == reached.leader).map(|reached| reached.offset)
    }
}

/// Follows control from some offsets of code: the starts of functions, for example. `base` is the address of the first
/// byte. Offsets outside the code are ignored.
///
/// Jumps and calls are followed to targets inside the code, and every call is assumed to return. Indirect targets are
/// unknown. Where no instruction can be decoded, the offset is reached and control ends.
///
/// # Errors
///
/// [`Error::BadMode`], [`Error::TooLarge`] (more than 16 MiB) or [`Error::NoMemory`].
pub fn flow_graph(bitness: u32, base: u64, code: &[u8], entries: &[u32]) -> Result<FlowGraph, Error> {
    followed(bitness, base, code, entries, Library::flow_from)
}

/// Follows control as [`flow_graph`] does, and also through instructions that the opcode table leaves out: those of
/// AVX-512, for example. Control goes to the end of each, and from XBEGIN also to its target.
///
/// ```
/// // vaddps zmm0, zmm0, zmm1; ret
/// let code = b"\x62\xF1\x7C\x48\x58\xC1\xC3";
/// let reached = |graph: feddurzai::FlowGraph| graph.reached().len();
/// assert_eq!(reached(feddurzai::flow_graph(64, 0x1000, code, &[0])?), 1);
/// assert_eq!(reached(feddurzai::flow_graph_unlisted(64, 0x1000, code, &[0])?), 2);
/// # Ok::<(), feddurzai::Error>(())
/// ```
///
/// # Errors
///
/// Those of [`flow_graph`].
pub fn flow_graph_unlisted(bitness: u32, base: u64, code: &[u8], entries: &[u32]) -> Result<FlowGraph, Error> {
    followed(bitness, base, code, entries, Library::flow_unlisted)
}

fn followed(
    bitness: u32,
    base: u64,
    code: &[u8],
    entries: &[u32],
    follow: impl Fn(Library, u32, u64, &[u8], &[u32], FlowOut<'_>) -> i32,
) -> Result<FlowGraph, Error> {
    let library = Library::get()?;
    if code.len() > MAX_FLOW {
        // the library gives this answer too; its buffers are not needed for it
        return Err(Error::TooLarge);
    }
    let (mut starts, mut leaders, mut kinds) = (vec![0; code.len()], vec![0; code.len()], vec![0; code.len()]);
    let out = FlowOut { starts: &mut starts, leaders: &mut leaders, kinds: &mut kinds };
    let count = taken(follow(library, bitness, base, code, entries, out))?;
    let found = starts.iter().zip(&leaders).zip(&kinds).take(count);
    let reached = found.map(|((&offset, &leader), &kind)| Reached { offset, leader, kind: kind_of(kind) }).collect();
    Ok(FlowGraph { reached })
}

/// The most bytes that `feddurzai_flow_from` and `feddurzai_flow` follow.
const MAX_FLOW: usize = 16 << 20;
const MAX_CODE: usize = 1 << 20;

fn kind_of(kind: u8) -> ReachedKind {
    match kind {
        0xFE => ReachedKind::TooShort,
        0xFF => ReachedKind::Invalid,
        flow => ReachedKind::Instruction(FlowControl::of(flow)),
    }
}

/// Follows control from the first byte of code, of at most 1 MiB. Returns the reached offsets in ascending order, each
/// with the offset of the first instruction of its basic block.
///
/// # Errors
///
/// [`Error::BadMode`], [`Error::TooLarge`] or [`Error::NoMemory`].
///
/// ```
/// // je 3; nop; ret
/// assert_eq!(feddurzai::basic_blocks(64, 0, b"\x74\x01\x90\xC3")?, [(0, 0), (2, 2), (3, 3)]);
/// # Ok::<(), feddurzai::Error>(())
/// ```
pub fn basic_blocks(bitness: u32, base: u64, code: &[u8]) -> Result<Vec<(u32, u32)>, Error> {
    let library = Library::get()?;
    if code.len() > MAX_CODE {
        return Err(Error::TooLarge);
    }
    let (mut starts, mut leaders) = (vec![0; code.len()], vec![0; code.len()]);
    let count = taken(library.flow(bitness, base, code, &mut starts, &mut leaders))?;
    Ok(starts.into_iter().zip(leaders).take(count).collect())
}
