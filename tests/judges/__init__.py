"""What works out, apart from the programs, what they have to print: the two machines, candidate executions, tables, graphs, documents, conditions,
verdicts on certificates."""
