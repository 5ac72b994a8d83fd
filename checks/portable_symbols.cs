// Gives an assembly portable symbols with the sequence points of a list, by the library Mono.Cecil.
//
// usage: mono portable_symbols.exe FROM TO LIST [inside]
//
// The lines of the list are those that tools/source_lines.cs prints. TO.pdb is written too, or with `inside` the
// symbols stand in TO itself.
using System;
using System.IO;
using System.Collections.Generic;
using System.Linq;
using Mono.Cecil;
using Mono.Cecil.Cil;

static class PortableSymbols
{
    static SequencePoint PointOf(string[] fields, MethodDefinition method, Document document)
    {
        int offset = Convert.ToInt32(fields[1], 16);
        Instruction at = method.Body.Instructions.Single(it => it.Offset == offset);
        int[] numbers = fields.Skip(2).Take(4).Select(int.Parse).ToArray();
        return new SequencePoint(at, document)
        {
            StartLine = numbers[0], StartColumn = numbers[1], EndLine = numbers[2], EndColumn = numbers[3],
        };
    }

    static void Main(string[] words)
    {
        ModuleDefinition module = ModuleDefinition.ReadModule(words[0]);
        var documents = new Dictionary<string, Document>();
        foreach (string[] fields in File.ReadAllLines(words[2]).Select(line => line.Split('\t')))
        {
            if (!documents.ContainsKey(fields[6])) documents[fields[6]] = new Document(fields[6]);
            var method = (MethodDefinition)module.LookupToken(Convert.ToInt32(fields[0], 16));
            method.DebugInformation.SequencePoints.Add(PointOf(fields, method, documents[fields[6]]));
        }
        ISymbolWriterProvider provider = new PortablePdbWriterProvider();
        if (words.Length == 4) provider = new EmbeddedPortablePdbWriterProvider();
        module.Write(words[1], new WriterParameters { WriteSymbols = true, SymbolWriterProvider = provider });
    }
}
