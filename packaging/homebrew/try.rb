# Runs a formula without Homebrew: ruby packaging/homebrew/try.rb FORMULA PREFIX, in the folder of its sources.
# It has the few words of Homebrew that the formula uses. It runs `install` with this PREFIX, and then the block `test` in a folder of its own.
require "digest"
require "pathname"
require "tmpdir"
require "uri"

def ENV.cc
  fetch("CC", "cc")
end

class Formula
  class << self
    attr_reader :said, :tried

    %i[desc homepage url sha256 license].each do |word|
      define_method(word) { |text| (@said ||= {})[word] = text }
    end

    def depends_on(named)
      (@needs ||= []) << (named.is_a?(Hash) ? named.keys.first : named)
    end

    def test(&block)
      @tried = block
    end

    # Checks what the formula says: all five words, and the sum of the archive, if that is a file.
    def check
      missing = %i[desc homepage url sha256 license].reject { |word| said[word] }
      raise "the formula lacks #{missing}" unless missing.empty?
      raise "the description is too long or ends with a stop" if said[:desc].size > 80 || said[:desc].end_with?(".")

      archive = URI(said[:url])
      return unless archive.scheme == "file"
      raise "the sum is not that of #{archive.path}" unless Digest::SHA256.file(archive.path).hexdigest == said[:sha256]
    end
  end

  attr_reader :prefix, :testpath

  def initialize(prefix, testpath)
    @prefix = Pathname(prefix)
    @testpath = Pathname(testpath)
  end

  %i[bin lib include share].each do |name|
    define_method(name) { prefix / name.to_s }
  end

  def version
    self.class.said[:url][/-(\d+(?:\.\d+)+)\.tar\.gz$/, 1] or raise "the url has no version"
  end

  def system(*words)
    Kernel.system(*words.map(&:to_s)) or raise "#{words.join(" ")}: status #{$?.exitstatus.inspect}"
  end

  def shell_output(words)
    said = `#{words}`
    $?.success? ? said : raise("#{words}: status #{$?.exitstatus.inspect}")
  end

  def assert_match(wanted, found)
    raise "#{found.inspect} has no #{wanted.inspect}" unless found.include?(wanted)
  end
end

path, prefix = ARGV
load path
formula = ObjectSpace.each_object(Class).find { |it| it < Formula }
formula.check
formula.new(prefix, Dir.pwd).install
Dir.mktmpdir do |folder|
  Dir.chdir(folder) { formula.new(prefix, folder).instance_exec(&formula.tried) }
end
