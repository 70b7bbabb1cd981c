//! Stands in for the module `node`: the names that `dag.rs` and `arrow.rs`
//! use. The lists of document 01 are turned into arrows without nodes, so of
//! all this only `DisconnectConstructible` and `NoDisconnect` are ever run.
//!
//! What it could hide: how the crate's nodes call the arrow constructors. There
//! (`node/mod.rs`) each constructor passes its children's arrows on unchanged.

use std::hash::Hash;
use std::sync::Arc;

use crate::dag::Dag;
use crate::types;

/// A `disconnect` with no second child.
#[derive(Copy, Clone)]
pub struct NoDisconnect;

pub trait DisconnectConstructible<'brand, X>: Sized {
    fn disconnect(left: &Self, right: &X) -> Result<Self, types::Error>;
}

pub trait Disconnectable<N> {
    fn disconnect_dag_arc(self, left: Arc<N>) -> Dag<Arc<N>>;
    fn disconnect_dag_ref<'s>(&'s self, left: &'s N) -> Dag<&'s N>;
}

pub trait Marker: Sized {
    type CachedData;
    type Witness;
    type Disconnect: Disconnectable<Node<Self>> + Clone;
    type SharingId: Hash + Clone + Eq;
    fn compute_sharing_id(data: &Self::CachedData) -> Option<Self::SharingId>;
}

/// What a node is, with its children. What a leaf carries is left out.
pub enum Inner<C, X, W> {
    Iden,
    Unit,
    InjL(C),
    InjR(C),
    Take(C),
    Drop(C),
    Comp(C, C),
    Case(C, C),
    AssertL(C, ()),
    AssertR((), C),
    Pair(C, C),
    Disconnect(C, X),
    Witness(W),
    Fail(()),
    Jet(()),
    Word(()),
}

pub struct Node<N: Marker> {
    inner: Inner<Arc<Node<N>>, N::Disconnect, N::Witness>,
    data: N::CachedData,
}

impl<N: Marker> Node<N> {
    pub fn inner(&self) -> &Inner<Arc<Node<N>>, N::Disconnect, N::Witness> {
        &self.inner
    }

    pub fn sharing_id(&self) -> Option<N::SharingId> {
        N::compute_sharing_id(&self.data)
    }
}
