// Prints the sequence points of assemblies: which IL offset begins which line of source.
//
// usage: mono source_lines.exe FILE
//
// They come from the portable symbols in FILE or in the file *.pdb beside it, else from FILE.mdb. A line for each point
// that is not hidden: token and IL offset in base sixteen, first line, first column, last line, last column, and the
// file of source, between tabs. A column or a last line that the symbols do not have is 0. The status is 1, with a
// message, where the symbols do not read, or are of another compilation than FILE.
using System;
using System.IO;
using System.Linq;
using System.Text;
using Mono.Cecil;
using Mono.Cecil.Cil;
using Mono.CompilerServices.SymbolWriter;

static class SourceLines
{
    const int Hidden = 0xFEEFEE;

    static void Print(int token, int offset, int line, int column, int lastLine, int lastColumn, string file)
    {
        if (line == Hidden || line <= 0) return;
        Console.WriteLine("{0:x8}\t{1:x4}\t{2}\t{3}\t{4}\t{5}\t{6}", token, offset, line, Math.Max(column, 0),
            Math.Max(lastLine, 0), Math.Max(lastColumn, 0), file);
    }

    static void PrintPortable(ModuleDefinition module, ISymbolReaderProvider provider, string path)
    {
        ISymbolReader reader = provider.GetSymbolReader(module, path);
        module.ReadSymbols(reader);
        foreach (TypeDefinition type in module.GetTypes())
            foreach (MethodDefinition method in type.Methods)
                foreach (SequencePoint it in reader.Read(method).SequencePoints)
                    Print(method.MetadataToken.ToInt32(), it.Offset, it.StartLine, it.StartColumn, it.EndLine,
                        it.EndColumn, it.Document.Url);
    }

    static void PrintMdb(ModuleDefinition module, string symbols)
    {
        MonoSymbolFile file = MonoSymbolFile.ReadSymbolFile(symbols, module.Mvid);
        foreach (MethodEntry method in file.Methods)
            foreach (LineNumberEntry it in method.GetLineNumberTable().LineNumbers)
                if (!it.IsHidden)
                    Print(method.Token, it.Offset, it.Row, it.Column, it.EndRow, it.EndColumn,
                        file.GetSourceFile(it.File).FileName);
    }

    static bool IsPortable(string path)
    {
        if (!File.Exists(path)) return false;
        using (var reader = new BinaryReader(File.OpenRead(path)))
            return reader.BaseStream.Length >= 4 && reader.ReadUInt32() == 0x424A5342;
    }

    static void PrintAll(string path)
    {
        string pdb = Path.ChangeExtension(path, ".pdb"), mdb = path + ".mdb";
        ModuleDefinition module = ModuleDefinition.ReadModule(path);
        if (module.HasDebugHeader && module.GetDebugHeader().Entries.Any(IsInside))
            PrintPortable(module, new EmbeddedPortablePdbReaderProvider(), path);
        else if (IsPortable(pdb))
            PrintPortable(module, new PortablePdbReaderProvider(), path);
        else if (File.Exists(mdb))
            PrintMdb(module, mdb);
        else
            throw new FileNotFoundException("there are no symbols that are read here");
    }

    static bool IsInside(ImageDebugHeaderEntry entry)
    {
        return entry.Directory.Type == ImageDebugType.EmbeddedPortablePdb;
    }

    static int Main(string[] words)
    {
        Console.OutputEncoding = new UTF8Encoding(false);
        try
        {
            PrintAll(words[0]);
            return 0;
        }
        catch (Exception fault)
        {
            Console.Error.WriteLine(fault.Message);
            return 1;
        }
    }
}
