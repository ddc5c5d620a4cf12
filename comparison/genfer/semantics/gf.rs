//! Stand-in for genfer's generating functions, of which the range analysis uses nothing.
