"""Exchange shared operations with other sites, through a broker."""
