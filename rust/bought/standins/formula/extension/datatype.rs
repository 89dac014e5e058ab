//! Stand-in: datatypes as extensions. The byte forms have no extension.
